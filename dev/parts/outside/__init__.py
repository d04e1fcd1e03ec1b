"""What dev/outside compares the board with: emulators that others wrote, where they are installed. None of it is in the gate."""
