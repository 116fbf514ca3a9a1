"""Texts with one misspelled word, by a script."""
import re

LETTERS = "abcdefghijklmnopqrstuvwxyz"


def misspelled(word, chance):
    """The word with one letter left out, added, exchanged with its neighbour, or changed."""
    how, place = chance.randrange(4), chance.randrange(len(word))
    if how == 0 and len(word) > 1:
        return word[:place] + word[place + 1:]
    if how == 1:
        return word[:place] + chance.choice(LETTERS) + word[place:]
    if how == 2 and len(word) > 1:
        place = min(place, len(word) - 2)
        return word[:place] + word[place + 1] + word[place] + word[place + 2:]
    return word[:place] + chance.choice(LETTERS) + word[place + 1:]


def with_misspelling(text, words, chance):
    """The text with another word in the place of one of these tokens, which may be a name too."""
    while True:
        token = chance.choice(words)
        new = misspelled(token.text, chance)
        if new.lower() != token.key and re.fullmatch(r"[A-Za-z](_*[A-Za-z0-9])*", new):
            return text[:token.place.offset] + new + text[token.place.end:]
