"""Firmware update over the air for LoRaWAN.

The calls of libfuota.so, which is proved, are names of this module (fuota.library). Nothing of the rest is proved:

    fuota.image      image files, made and read
    fuota.planning   how many coded fragments a loss asks for, by campaigns that are played and by theory
    fuota.campaign   a campaign over a network server, and its rehearsal
    fuota.captures   captures of what a network server logs
    fuota.lns        the network servers' messages, both ways
    fuota.limits     the numbers that bound all of these
"""
from .library import *

__version__ = "0.1.0"
