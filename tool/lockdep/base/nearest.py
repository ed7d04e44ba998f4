"""Which of some words a mistyped one is nearest to."""
from __future__ import annotations

MOST_LETTERS = 40
OF_A_BEGINNING = 0.5  # how far a word is from one that it begins with


def distance(wrong: str, word: str) -> int:
    """How many letters are wrong, missing, surplus or swapped with a neighbour."""
    before: list[int] = []
    last = list(range(len(word) + 1))
    for at, letter in enumerate(wrong):
        row = next_row(wrong, word, at, letter, last, before)
        before, last = last, row
    return last[-1]


def next_row(wrong: str, word: str, at: int, letter: str, last: list[int], before: list[int]) -> list[int]:
    row = [at + 1]
    for other_at, other in enumerate(word):
        least = min(last[other_at] + (letter != other), last[other_at + 1] + 1, row[other_at] + 1)
        if at and other_at and letter == word[other_at - 1] and wrong[at - 1] == other:
            least = min(least, before[other_at - 1] + 1)
        row.append(least)
    return row


def nearest(wrong: str, words: list[str]) -> str | None:
    """The nearest word, if at most a third of its letters (or one) are wrong, or if it begins with what was typed."""
    letters = wrong.lstrip("-")
    if len(letters) > MOST_LETTERS:
        return None
    found, least = None, max(len(letters) / 3, 1)
    for each in words:
        word = each.lstrip("-")
        is_beginning = len(letters) > 1 and word.startswith(letters)
        changes = OF_A_BEGINNING if is_beginning else distance(letters, word)
        # A word of which nothing is right isn't near, however short it is.
        if changes <= least and changes < len(word) and (changes < least or found is None):
            found, least = each, changes
    return found
