/* ends: Null_Exception at 6 */
struct node { int value; struct node *next; };
int main(void)
{
    struct node n = {1, 0};
    return n.next->value;
}
