/*
 * Adds three bits by a garbled circuit, and prints the sum and the carry.
 *
 *   full_adder A B C
 *
 * It runs at the top of the repository, where the circuit is examples/full_adder.txt.
 */
#include <exception>
#include <fstream>
#include <halfgates.hpp>
#include <iostream>
#include <iterator>
#include <stdexcept>
#include <string>
#include <vector>

static int run(char **bits) {
    std::ifstream file("examples/full_adder.txt");
    if (!file)
        throw std::runtime_error("there is no examples/full_adder.txt here");
    const std::string text{std::istreambuf_iterator<char>(file), {}};
    halfgates::circuit circuit(text);
    halfgates::garbling garbling = circuit.garble(halfgates::seed::random());
    std::vector<halfgates::bytes> labels;
    for (std::uint32_t i = 0; i < 3; i++)
        labels.push_back(garbling.deal(i, {static_cast<std::uint8_t>(bits[i][0] - '0')}));
    for (int bit : circuit.bind(garbling.write(), labels).evaluate())
        std::cout << bit;
    std::cout << "\n";
    return 0;
}

int main(int count, char **words) {
    if (count != 4) {
        std::cerr << "usage: full_adder A B C\n";
        return 2;
    }
    try {
        return run(words + 1);
    } catch (const std::exception &error) {
        std::cerr << "full_adder: " << error.what() << "\n";
        return 1;
    }
}
