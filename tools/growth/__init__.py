"""What a program's runs cost, and how that grows: the checks of tools/check-growth."""
