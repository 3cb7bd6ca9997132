"""Writes the recording that the gate replays: a visit with every command, at whose end code runs."""
import sys

from recording import recording
from visits import refused, run, usual

sys.stdout.buffer.write(recording(*usual(), *refused(), *run()))
