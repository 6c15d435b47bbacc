typedef struct { int notUsed; } TMilli;
