"""A second reader of docs/DEFINITIONS.md and docs/FORMATS.md: what each script must print, and what it must save.

It is slow and plain, and shares no code with the program. A ward is a set of leaves, the low bounds of its pages in the
order of their birth, and a list of notices; a copy of the directory is the set of entries that it was told; the records
of all pages are one map. Whatever else is asked of them, as whether a page is live, where it links to or what a copy's
walk names, is worked out from these each time.

    version        the limit of a prefix and the version of a page file: what differs when these grow
    bits           prefixes and pseudokeys
    tables         entries and notices; the table, walks and leaves of what somebody was told
    file           wards and the one map: hops, splits, merges
    world          copies of the directory, sent tables, requests in flight
    grammar        the words of lines, and how values are printed
    script         what each line prints
    page_file      the bytes of a page file, and what `check`, `dump`, `pairs` and `load` print
    page_reader    what its blocks and pages say, or their first fault
    legal          its pages and entries, and the six reasons for which they are no file
    file_reader    what the bytes of a page file say, or their first fault
    placed_file    the bytes of a page file of version 3
    placed_reader  what these say, or their first fault
    command_line   the words behind a command
    request        what the words of an everyday command ask for
    everyday       what such a command comes to: what it prints, says, ends with and leaves
    said           the sentences of standard error, as far as they are known
    saving         where a file may be saved
    program        what the program does with its words: what it prints, its status, and the files it leaves

The others make scripts by chance, and run the program over them.

    dice           settings, keys, values and wrong lines
    writer         scripts
    hostile_lines  each line of the grammar, and what stands next to it
    other_files    page files that no run saves
    hostile_files  page files by chance with faults in them, for tests/turned_files
    broken_files   such files of version 3, for tests/broken_files
    broken_ways    how they are broken
    crowded_files  files of version 3 with several faults, of which it is told which is first
    drafts         a file of version 3 taken apart and put together
    many_pages     files of thousands of empty pages
    placed_examples  the files of version 3 that are written out, and what is told of their bytes turned
    spawned        runs of the program in a folder of memory
    sweeps         parts of many runs by workers at once
    stories        runs that belong together
    commands       commands by chance over a file, beside its map
    runs           runs the program, and names the first line that differs
    counts         what must have come up
    wrong_answers  a program that gives a wrong answer, for `check`
    check          sees that wrong answers are found, and that the cases of tests/ are read as they say

These are for the parts about savers, tests/meeting_saves and its like.

    savers         runs that save at a path, and what others do there
    bench          a folder where they run, and may wait at a call of the system
    rooms          the kinds of such a folder
"""
