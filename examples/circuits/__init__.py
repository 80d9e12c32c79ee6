"""Well-known circuits, built from gates."""
