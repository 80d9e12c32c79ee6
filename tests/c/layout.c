/* The interface that programs are compiled against, which a release with the same soname keeps: sizes and places. */
#include <halfgates.h>

#define SIZE(type, size) _Static_assert(sizeof(type) == (size), #type)
#define AT(type, field, place) _Static_assert(offsetof(type, field) == (place), #type "." #field)

SIZE(halfgates_name, 32);
AT(halfgates_name, text, 0);

SIZE(halfgates_numbers, 28);
AT(halfgates_numbers, gates, 0);
AT(halfgates_numbers, and_gates, 4);
AT(halfgates_numbers, wires, 8);
AT(halfgates_numbers, input_wires, 12);
AT(halfgates_numbers, output_wires, 16);
AT(halfgates_numbers, input_values, 20);
AT(halfgates_numbers, output_values, 24);

SIZE(halfgates_gate, 16);
AT(halfgates_gate, operation, 0);
AT(halfgates_gate, first, 4);
AT(halfgates_gate, second, 8);
AT(halfgates_gate, set, 12);

SIZE(halfgates_place, 32);
AT(halfgates_place, fault, 0);
AT(halfgates_place, gate, 4);
AT(halfgates_place, wire, 8);
AT(halfgates_place, line, 16);
AT(halfgates_place, column, 24);

SIZE(halfgates_sentence, 256);
AT(halfgates_sentence, text, 0);

SIZE(halfgates_wire_labels, 33);
AT(halfgates_wire_labels, zero, 0);
AT(halfgates_wire_labels, active, 16);
AT(halfgates_wire_labels, bit, 32);

SIZE(halfgates_audit_report, 28);
AT(halfgates_audit_report, honest, 0);
AT(halfgates_audit_report, version, 1);
AT(halfgates_audit_report, digest, 2);
AT(halfgates_audit_report, counts, 3);
AT(halfgates_audit_report, generator, 4);
AT(halfgates_audit_report, evaluator, 5);
AT(halfgates_audit_report, entry_colour, 6);
AT(halfgates_audit_report, row, 8);
AT(halfgates_audit_report, gate, 12);
AT(halfgates_audit_report, wire, 16);
AT(halfgates_audit_report, decode_bit, 20);
AT(halfgates_audit_report, entry, 24);

SIZE(halfgates_rows_report, 20);
AT(halfgates_rows_report, honest, 0);
AT(halfgates_rows_report, generator, 1);
AT(halfgates_rows_report, evaluator, 2);
AT(halfgates_rows_report, row, 4);
AT(halfgates_rows_report, gate, 8);
AT(halfgates_rows_report, wire, 12);
AT(halfgates_rows_report, decode_bit, 16);

SIZE(halfgates_labels_report, 16);
AT(halfgates_labels_report, verdict, 0);
AT(halfgates_labels_report, index, 4);
AT(halfgates_labels_report, count, 8);
AT(halfgates_labels_report, wire, 12);

_Static_assert(HALFGATES_NONE == 4294967295u, "HALFGATES_NONE");

int main(void) {
    return 0;
}
