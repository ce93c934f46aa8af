"""Cases of every form of the program that are drawn at random, for `tests/against_model`.

They are no part of the definition in tests/model, which they use to write payloads and to play scripts while they are
drawn. Whoever draws hands in a `random.Random`, so that a seed says all.
"""
