"""The parts of checks/report."""
