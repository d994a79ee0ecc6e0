/* A crate without a name: what it comes in the place of is gone. */
