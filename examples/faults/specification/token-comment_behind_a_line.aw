role desk % front
