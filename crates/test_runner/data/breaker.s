# Stops at EBREAK, at once.
_start: ebreak
