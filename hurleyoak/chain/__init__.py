"""What a small crowd does, computed of its Markov chain: chances, means and distributions. None of it is proved."""
