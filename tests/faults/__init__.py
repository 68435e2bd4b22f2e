"""The same run again and again, and in each another call fails."""
