"""Plain models that share nothing with the library, and the questions to all languages: unions.py has sets of leaves,
calculator.py the program. vectors.py and edges.py print questions with their answers."""
