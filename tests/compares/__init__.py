"""What holds the compiled core, the program and the model to one another, and the model to figures."""
