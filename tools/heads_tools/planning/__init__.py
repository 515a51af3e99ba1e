"""What plans do: differences of listings, and whatever the weather."""
