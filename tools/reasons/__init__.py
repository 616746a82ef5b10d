"""What is wrong at the place of a refusal: one module for each kind of fault, and what they share (`why.py`)."""
