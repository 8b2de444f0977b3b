"""The second program: words, texts, sheets, tables, lines, lists, vocabularies, written from
documents 01 and 02 alone.

It shares nothing with the crates, so that an answer both give is an answer of 01 and not of one
author. It follows 01's sentences in their order and takes the plain way where there is one.

Words, texts, sheets, lines, exception lists and vocabularies are bytes; a table is a list of
numbers. There is one function for each request of the program `probe`. Each gives the number
returned, the values, and what was lent to be written as it is afterwards, in this order.
"""

from second.lines import make_sheet
from second.lists import lookup, text_with_list, word_with_list
from second.sheets import check_sheet
from second.tables import table_run, translate_sheet
from second.texts import next_word, text_run
from second.vocabularies import check_vocabulary
from second.words import word_stem

__all__ = [
    "check_sheet",
    "check_vocabulary",
    "lookup",
    "make_sheet",
    "next_word",
    "table_run",
    "text_run",
    "text_with_list",
    "translate_sheet",
    "word_stem",
    "word_with_list",
]
