"""What designers run beside Lizdrog: readers of its documents, answers and journals, and the command itself."""
