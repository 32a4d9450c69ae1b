"""From the description of a sealed appliance to a request file, and from its transcript to a page."""
