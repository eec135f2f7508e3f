"""The independent model, what it writes for the gate, what draws cases, and what compares; run from the project's root."""
