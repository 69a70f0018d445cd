"""An evaluator of dxi's language in Python, independent of the program: the package that compare uses."""
