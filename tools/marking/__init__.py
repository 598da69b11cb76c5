"""What ./class is made of: it marks solutions, and looks which mistakes in a model no expectation notices."""
