signatures 1; operation long nop(); operation void one();
