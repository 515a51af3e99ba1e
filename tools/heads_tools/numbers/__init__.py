"""A model's equations in doubles and in whole numbers, and certificates made with them."""
