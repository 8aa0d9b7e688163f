schedule now
