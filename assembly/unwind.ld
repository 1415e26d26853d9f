/* Lays the text of unwind.c between two names. */
SECTIONS { .framed : { first_of_text = .; *framed.o(.text .text.*) end_of_text = .; } } INSERT AFTER .text;
