"""Campaigns: a plan (plan, tables), what is kept (folder, journal), what goes out when (play, over begun, sending, opening and
reserve), what devices delete after it (clean), and the ways to the devices (carrier, pipe, mqtt, rehearsal). The command is
fuota-campaign (command)."""
