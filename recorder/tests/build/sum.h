#ifdef __cplusplus
extern "C" {
#endif
long sum(const long *a, int n);
void halve(long *a, int n);
#ifdef __cplusplus
}
#endif
