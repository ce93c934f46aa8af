"""The cases of tests/fuzz, by what they try, and what they are held against.

Nothing here comes from the crates or from tests/model: lines, layouts and texts are written again, from the standards and docs/.
"""
