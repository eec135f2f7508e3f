"""The pictures of the manual, drawn from the model's figures, and the storeys from the stored listing of the worked sheet."""
