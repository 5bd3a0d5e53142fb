//! Stands for f16.rs, which is not in the text. It is ours, is empty, and is no evidence about that file.
