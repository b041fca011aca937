"""The checks of the trial, a file for each subject."""
