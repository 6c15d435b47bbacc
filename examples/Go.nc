interface Go { command void go(); }
