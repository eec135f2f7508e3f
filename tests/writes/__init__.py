"""What the model writes for the gate: inputs of its programs, and what they must answer."""
