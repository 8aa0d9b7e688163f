"""What the companions for form designers share: places in a text, its lines, what they declare, and words for faults."""
