"""The tools of stackbound: stackcheck, assume, place and flagged."""
