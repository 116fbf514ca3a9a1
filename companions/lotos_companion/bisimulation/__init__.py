"""Two specifications compared: certificates of bisimulation that are found, and scenarios that tell them apart."""
