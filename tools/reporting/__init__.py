"""The parts of tools/report."""
# Of what is reported: raised where a number, a rule or a fingerprint changes its meaning.
VERSION = "1.0.0"
