"""Makes each system call of the programs fail in turn: scenarios, and the expected result of each."""
