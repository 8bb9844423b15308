"""What ./osi live and ./osi together are made of: Python 3's standard library alone, tested and not proved.

    command   a tool's words, its faults, and the program that it takes
    setup     the set-up of a script: systems, ports, LANs
    frame     802.3 frames, and the records of a capture
    program   processes of the program that lines are given to
    wires     Ethernet interfaces and datagrams of UDP, which carry frames
    clock     ticks at whole multiples of a period
    log       a run on a wire, kept as a script
    beginning which systems begin silent
    typed     which lines may be handed on to a run
    waiting   lines that wait for events
    watching  what a run waits for: files, and the signals that end it
    running   ./osi live
    story     a transcript, event by event
    joining   ./osi together
"""
