#!/usr/bin/env python3
"""Gives today's spelling to names that tools/respell.py leaves: they stand in what had landed, and no longer in the work that was begun on it.

usage: python3 tools/respell_rest.py     at the top, once, after tools/respell.py
"""

import respell

respell.PAGES = "\n".join([respell.NAMES.strip(), respell.PAGES.strip()])
respell.NAMES = """
answer-is answer_is
chosen-append chosen_append
chosenFrom chosen_from
closed-large closed_large
closedJobOf closed_job_of
decides-holds decides_holds
first-chosen first_chosen
foot-of foot_of
kept-all kept_all
length-line length_line
line-is line_is
line-long line_long
lines-full lines_full
listed-parts listed_parts_told
listed-room listed_room
listedParts listed_parts
listing-refused listing_refused
namesLine names_line
numbers-is numbers_is
one-fault one_fault
page-ended page_ended
page-granted page_granted
page-refused page_refused
pageOf-same page_of_same
paged-same paged_same
room-comma room_comma
room-numbers room_numbers
room-place room_place
setAnswer set_answer
setLines-append lines_of_sets_append
sets-parts sets_parts
sets-refused sets_refused
takes-line takes_line_same
takesSet takes_set
toComma to_comma
toNames to_names
toPlace to_place
told-common told_common
told-width told_width
whole-fits whole_fits
whole-full whole_full
wholeAnswer whole_answer
wholePage whole_page
width-other width_other
widths-named widths_named
"""

if __name__ == "__main__":
    respell.main()
