"""What tests, benches and tools share. The folders of benches and tools have a link to it, so that
each of their scripts runs by itself."""
