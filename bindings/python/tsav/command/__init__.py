"""The command `tsav`: figures go in as people have them, and a refusal is told in words.

Every answer comes of a call of the proved library. What is here adds, subtracts and converts units, in whole cents, and
no more. A subcommand is a module: it says what it takes in `add`, and its `run` gives an Answer, which main.py writes.
Everything that is read by people is a message of messages.py, in English and French.
"""
