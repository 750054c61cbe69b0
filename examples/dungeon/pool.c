// Things in the cave, kept in a pool: those that are there are one list, those that are free another.
#define most_things 40

enum Kind { rat, snake, ogre, potion, gold };

struct Thing
{
    int kind;
    Point place;
    int health;
    Thing* next;
};

Thing[most_things] pool;
Thing* things;
Thing* free_things;

void empty_pool()
{
    things = NULL;
    free_things = NULL;
    for (int n = most_things - 1; n >= 0; n--)
    {
        pool[n].next = free_things;
        free_things = &pool[n];
    }
}

// A thing of that kind, or NULL where the pool has none left.
Thing* add_thing(int kind, Point place, int health)
{
    Thing* made = free_things;
    if (made == NULL) return NULL;
    free_things = made->next;
    made->kind = kind;
    made->place = place;
    made->health = health;
    made->next = things;
    things = made;
    return made;
}

void take_out(Thing* gone)
{
    Thing** link = &things;
    while (*link != gone) link = &(*link)->next;
    *link = gone->next;
    gone->next = free_things;
    free_things = gone;
}

bool is_monster(Thing* t)
{
    return t->kind <= ogre;
}

// The first thing at that place, monsters before what lies there; NULL where there is none.
Thing* thing_at(Point p)
{
    Thing* found = NULL;
    for (Thing* t = things; t != NULL; t = t->next)
        if (t->place.x == p.x && t->place.y == p.y && (found == NULL || is_monster(t))) found = t;
    return found;
}
