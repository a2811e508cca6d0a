; An image of no words: level 1 finds nops, up to the end of the code, and is trapped there.
