"""Holds docs/manual to the model: no number of a field, a refusal, a rule or a worked step is another than the model's.

Every check yields whether it holds, and the words that say what is wrong where it does not.
"""
