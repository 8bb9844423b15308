"""What `osi recovery` is made of: whether a run keeps what is claimed of networks that lose no more, by a reading of script, transcript and
frames that has nothing of the program.

reading     a script beside its transcript, line by line
frames      what frames carry: network PDUs, their segments, TPDUs
ends        each end of a transport connection, from its events and its frames: what it sent, took and showed, and when
claim       the sentences, and where a run breaks one
report      what is told of a run
outage      scripts with an outage, at random

Times are in ticks. A step is a line of the script that does something, with the events that the transcript has of it; places of steps count
from 0, and what is true after the step at a place is what the steps up to it told.
"""
