/* Freivalds' check and the product by FLINT's matrices modulo a word. All
   matrices are made before, also those of the results. */

#include <stdint.h>
#include <stdlib.h>

#include <flint/nmod_mat.h>

typedef struct {
    nmod_mat_t a, b, c, x;
    nmod_mat_t u, left, right, product;
} matrices;

static void fill(nmod_mat_t matrix, const uint32_t *values) {
    for (slong i = 0; i < matrix->r; i++)
        for (slong j = 0; j < matrix->c; j++)
            nmod_mat_entry(matrix, i, j) = *values++;
}

/* a is rows by inner, b inner by columns, c rows by columns, x columns by
   vectors, each row by row. */
matrices *bench_flint_new(uint32_t p, uint32_t rows, uint32_t inner, uint32_t columns, uint32_t vectors,
                          const uint32_t *a, const uint32_t *b, const uint32_t *c, const uint32_t *x) {
    matrices *m = malloc(sizeof *m);
    if (m == NULL)
        abort();
    nmod_mat_init(m->a, rows, inner, p);
    nmod_mat_init(m->b, inner, columns, p);
    nmod_mat_init(m->c, rows, columns, p);
    nmod_mat_init(m->x, columns, vectors, p);
    nmod_mat_init(m->u, inner, vectors, p);
    nmod_mat_init(m->left, rows, vectors, p);
    nmod_mat_init(m->right, rows, vectors, p);
    nmod_mat_init(m->product, rows, columns, p);
    fill(m->a, a);
    fill(m->b, b);
    fill(m->c, c);
    fill(m->x, x);
    return m;
}

void bench_flint_free(matrices *m) {
    nmod_mat_clear(m->a);
    nmod_mat_clear(m->b);
    nmod_mat_clear(m->c);
    nmod_mat_clear(m->x);
    nmod_mat_clear(m->u);
    nmod_mat_clear(m->left);
    nmod_mat_clear(m->right);
    nmod_mat_clear(m->product);
    free(m);
}

/* c x = a (b x) */
int bench_flint_freivalds(matrices *m) {
    nmod_mat_mul(m->u, m->b, m->x);
    nmod_mat_mul(m->left, m->c, m->x);
    nmod_mat_mul(m->right, m->a, m->u);
    return nmod_mat_equal(m->left, m->right);
}

/* a b */
void bench_flint_product(matrices *m) {
    nmod_mat_mul(m->product, m->a, m->b);
}

/* a b = c, of the product made last */
int bench_flint_equal(matrices *m) {
    return nmod_mat_equal(m->product, m->c);
}

const char *bench_flint_version(void) {
    return FLINT_VERSION;
}
