"""What a person is shown: explanations, sentences, pages, plots and drawings."""
