"""Jobs and plans that one can read: the text form, the rules of moves and prices, words and pictures.

    errors, refusals                            what goes wrong, in words
    bits                                        fields of bits in bytes
    grid, job                                   the data: vertices, moves, and a job
    job_packing, job_reading                    a job to its bytes and back, with the refusals 1 to 11
    statements, forms                           lines of text, and what a line may say
    text_reading, text_writing                  the text form of a job to a job and back
    views, prices, segments, overheads, steps   one move by the rules
    plan, standing, replay                      a plan's records, what they leave standing, and a plan walked (15 to 18)
    words, explain                              a job's totals and a plan in words
    counts, report                              a plan's moves counted by layer and kind, and tables of many plans
    svg, colours, panel                         elements, the nets' colours, and where a layer stands
    ground, wiring, legend, draw                what a job draws, what a plan draws, what the marks mean, and the picture
    route                                       the program run on a job
    files, version, arguments, commands         the tool's files, its version, its command line and its commands
"""
