init {
	int a;
	a = b + 1
}
